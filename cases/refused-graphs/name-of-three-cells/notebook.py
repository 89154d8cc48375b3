import marimo
app = marimo.App()
@app.cell
def _():
    x = 1
@app.cell
def _():
    x = 2
@app.cell
def _():
    x = 3
if __name__ == "__main__":
    app.run()
