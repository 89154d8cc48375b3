import marimo
app = marimo.App()
@app.cell
def _():
    a
    a = 1
@app.cell
def _():
    c = 2 + b
@app.cell
def _():
    b = 1
if __name__ == "__main__":
    app.run()
