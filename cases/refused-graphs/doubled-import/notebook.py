import marimo
app = marimo.App()
@app.cell
def _():
    import marimo as mo
@app.cell
def _():
    import marimo as mo
if __name__ == "__main__":
    app.run()
