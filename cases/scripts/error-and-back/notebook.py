import marimo
app = marimo.App()
@app.cell
def _():
    import marimo as mo
@app.cell
def _():
    s = mo.ui.slider(0, 10)
@app.cell
def _():
    u
@app.cell
def _():
    u = s.value + 170141183460469231731687303715884105725
@app.cell
def _():
    9
if __name__ == "__main__":
    app.run()
