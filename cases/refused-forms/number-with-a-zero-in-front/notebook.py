import marimo
app = marimo.App()
@app.cell
def _():
    07
if __name__ == "__main__":
    app.run()
