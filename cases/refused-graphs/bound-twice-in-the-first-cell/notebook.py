import marimo
app = marimo.App()
@app.cell
def _():
    a = 1
    a = 2
@app.cell
def _():
    b = a
@app.cell
def _():
    a = 3
if __name__ == "__main__":
    app.run()
