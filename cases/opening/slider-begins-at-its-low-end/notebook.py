import marimo
app = marimo.App()
@app.cell
def _():
    t = s.value + s.value
    t
@app.cell
def _():
    s = mo.ui.slider(7, 10)
@app.cell
def _():
    import marimo as mo
if __name__ == "__main__":
    app.run()
