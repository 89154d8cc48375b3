import marimo
app = marimo.App()
@app.cell
def _():
    a = 1
@app.cell
def _():
    b = 1
@app.cell
def _():
    b = 1
@app.cell
def _():
    a = 1
if __name__ == "__main__":
    app.run()
