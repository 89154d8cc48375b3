import marimo
app = marimo.App()
@app.cell
def _():
    import marimo as mo
@app.cell
def _():
    s = mo.ui.slider(0, 10)
@app.cell
def _():
    t = mo.ui.slider(1, 1)
@app.cell
def _():
    a = s.value + 1 + t.value
    a
if __name__ == "__main__":
    app.run()
