import marimo
app = marimo.App()
@app.cell
def _():
    print = 1
if __name__ == "__main__":
    app.run()
