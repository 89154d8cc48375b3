import marimo
app = marimo.App()
@app.cell
def _():
    p = 1
@app.cell
def _():
    q = 1
@app.cell
def _():
    q = 2
    p = 3
if __name__ == "__main__":
    app.run()
