import marimo
app = marimo.App()
@app.cell
def _():
@app.cell
