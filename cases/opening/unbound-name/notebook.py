import marimo
app = marimo.App()
@app.cell
def _():
    zz
if __name__ == "__main__":
    app.run()
