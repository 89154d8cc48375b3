import marimo
app = marimo.App()
@app.cell
def _():
    import marimo as mo
@app.cell
def _():
    s = mo.ui.slider(3, 10)
@app.cell
def _():
    a = 1
@app.cell
def _():
    a + s.value + s.value + s.value + s.value + s.value + s.value + s.value + s.value + s.value + s.value + s.value + s.value + s.value + s.value + s.value + s.value + s.value + s.value + s.value + s.value + s.value + s.value + s.value + s.value + s.value + s.value + s.value + s.value + s.value + s.value + s.value
if __name__ == "__main__":
    app.run()
