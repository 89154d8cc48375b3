import marimo
app = marimo.App()
@app.cell
def _():
    b + 1
@app.cell
def _():
    b = a + 170141183460469231731687303715884105727
@app.cell
def _():
    a = 1
if __name__ == "__main__":
    app.run()
