import marimo
app = marimo.App()
@app.cell
def _():
    a = b
@app.cell
def _():
    b = a
@app.cell
def _():
    a = 1
if __name__ == "__main__":
    app.run()
