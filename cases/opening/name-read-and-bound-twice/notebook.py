import marimo
app = marimo.App()
@app.cell
def _():
    a = 1 + a
    a = 1 + a
@app.cell
def _():
    b = 1 + a
if __name__ == "__main__":
    app.run()
