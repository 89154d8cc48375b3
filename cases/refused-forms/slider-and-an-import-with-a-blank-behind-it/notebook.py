import marimo
app = marimo.App()
@app.cell
def _():
    s = mo.ui.slider(0, 10)
@app.cell
def _():
    import marimo as mo 
if __name__ == "__main__":
    app.run()
