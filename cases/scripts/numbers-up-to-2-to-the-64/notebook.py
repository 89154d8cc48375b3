import marimo
app = marimo.App()
@app.cell
def _():
    import marimo as mo
@app.cell
def _():
    s = mo.ui.slider(0, 170141183460469231731687303715884105727)
@app.cell
def _():
    s.value + 1
if __name__ == "__main__":
    app.run()
