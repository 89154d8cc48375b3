import marimo
app = marimo.App()
@app.cell
    x
