import marimo
app = marimo.App()
@app.cell
def _():
    x = 170141183460469231731687303715884105728
