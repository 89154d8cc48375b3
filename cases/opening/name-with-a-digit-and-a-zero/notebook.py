import marimo
app = marimo.App()
@app.cell
def _():
    x_1 = 0
    x_1
if __name__ == "__main__":
    app.run()
