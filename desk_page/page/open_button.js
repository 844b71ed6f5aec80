// The button that opens a document that was told of, at a page where one is named; in a dialog it closes that, and the page has
// the focus.
export function openButton({ dialog, review, act }, number, page) {
  const button = document.createElement('button')
  button.type = 'button'
  button.textContent = page === undefined ? `Open document ${number}` : `Open document ${number}, page ${page}`
  button.addEventListener('click', act(() => {
    if (dialog !== null) {
      dialog.close()
      document.getElementById('sheet').focus()
    }
    return review.open(number, page)
  }))
  return button
}
