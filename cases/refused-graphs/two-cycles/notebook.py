import marimo
app = marimo.App()
@app.cell
def _():
    a = b
@app.cell
def _():
    c = d
@app.cell
def _():
    b = a
@app.cell
def _():
    n = 1
@app.cell
def _():
    d = c
if __name__ == "__main__":
    app.run()
