import marimo
app = marimo.App()
@app.cell
def _():
    import marimo as mo
    x = 1
if __name__ == "__main__":
    app.run()
