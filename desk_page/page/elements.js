// Elements that a module makes by itself: `made('p', { id: 'found', role: 'status' }, 'No hit.')`. What isn't an attribute
// stays away: null, undefined and false are left out, and true is an attribute without a value.
export function made(name, attributes = {}, ...children) {
  const element = document.createElement(name)
  for (const [key, value] of Object.entries(attributes)) {
    if (value === null || value === undefined || value === false) continue
    element.setAttribute(key, value === true ? '' : value)
  }
  element.append(...children)
  return element
}

// a button of the page, which is no form's
export const button = (text, attributes = {}) => made('button', { type: 'button', ...attributes }, text)
