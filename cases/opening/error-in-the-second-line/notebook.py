import marimo
app = marimo.App()
@app.cell
def _():
    a = 1
    b = a + c
    b
if __name__ == "__main__":
    app.run()
