import marimo
app = marimo.App()
@app.cell
def _():
    b
@app.cell
def _():
    b = a + 3
@app.cell
def _():
    a = 2
if __name__ == "__main__":
    app.run()
