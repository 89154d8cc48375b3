import marimo
app = marimo.App()
@app.cell
def _():
    import marimo as mo
@app.cell
def _():
    s.value
    ?
    s = mo.ui.slider(1, 2)
