import marimo
app = marimo.App()
@app.cell
def _():
    price = 40
@app.cell
def _():
    total = price + fee
@app.cell
def _():
    total
if __name__ == "__main__":
    app.run()
