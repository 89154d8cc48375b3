import marimo
app = marimo.App()
@app.cell
def _():
    a = b
@app.cell
def _():
    b = a
if __name__ == "__main__":
    app.run()
