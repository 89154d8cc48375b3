import marimo
app = marimo.App()
@app.cell
def _():
    import marimo as mo
@app.cell
def _():
    s = mo.ui.slider(2, 3))
if __name__ == "__main__":
    app.run()
