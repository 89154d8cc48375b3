import marimo
app = marimo.App()
@app.cell
def _():
    import marimo as mo
@app.cell
def _():
    s = mo.ui.slider(1, 9)
@app.cell
def _():
    t = mo.ui.slider(20, 90)
@app.cell
def _():
    a = s.value + 100
@app.cell
def _():
    b = t.value + 1000
@app.cell
def _():
    a + b
@app.cell
def _():
    b
if __name__ == "__main__":
    app.run()
