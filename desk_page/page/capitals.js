// A field of text that takes capitals, and makes them of small letters where they are typed.
export function keepCapitals(field) {
  field.addEventListener('input', () => {
    const { selectionStart, selectionEnd } = field
    field.value = field.value.toUpperCase()
    field.setSelectionRange(selectionStart, selectionEnd)
  })
}
