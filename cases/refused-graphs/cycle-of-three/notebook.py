import marimo
app = marimo.App()
@app.cell
def _():
    a = c
@app.cell
def _():
    b = a
@app.cell
def _():
    c = b
@app.cell
def _():
    d = a
if __name__ == "__main__":
    app.run()
