import marimo
app = marimo.App()
@app.cell
def _():
    170141183460469231731687303715884105726 + 1
if __name__ == "__main__":
    app.run()
