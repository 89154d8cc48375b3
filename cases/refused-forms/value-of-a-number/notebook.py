import marimo
app = marimo.App()
@app.cell
def _():
    s = 1
@app.cell
def _():
    s.value
if __name__ == "__main__":
    app.run()
