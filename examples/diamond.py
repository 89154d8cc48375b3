import marimo
app = marimo.App()
@app.cell
def _():
    total = left + right
    total
@app.cell
def _():
    left = base + 1
@app.cell
def _():
    right = base + 10
@app.cell
def _():
    base = 100
if __name__ == "__main__":
    app.run()
