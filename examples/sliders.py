import marimo
app = marimo.App()
@app.cell
def _():
    total = net + shipping.value
    total
@app.cell
def _():
    net = items.value + items.value + 5
@app.cell
def _():
    items = mo.ui.slider(2, 20)
@app.cell
def _():
    shipping = mo.ui.slider(0, 15)
@app.cell
def _():
    import marimo as mo
if __name__ == "__main__":
    app.run()
