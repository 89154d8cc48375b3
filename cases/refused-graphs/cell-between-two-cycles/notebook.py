import marimo
app = marimo.App()
@app.cell
def _():
    x = 1
@app.cell
def _():
    a = b + x
@app.cell
def _():
    b = a
@app.cell
def _():
    y = b
@app.cell
def _():
    c = y + d
@app.cell
def _():
    d = c
if __name__ == "__main__":
    app.run()
