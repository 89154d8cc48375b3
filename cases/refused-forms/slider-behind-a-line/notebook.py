import marimo
app = marimo.App()
@app.cell
def _():
    import marimo as mo
@app.cell
def _():
    x
    s = mo.ui.slider(1, 2)
