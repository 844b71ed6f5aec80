// The focus stays where somebody works. Where the control that has it goes away, is hidden or can't be pressed any more, a browser
// leaves the focus with nothing, and who works by keys begins anew at the top: here one beside it gets it, or the page.

const CONTROLS = 'button, input, select, textarea, summary, a[href], [tabindex]'
const GROUPS = 'form, section, [role=toolbar]' // beyond these a neighbour is none

const canHave = (it) => it.isConnected && !it.disabled && it.tabIndex >= 0 && it.checkVisibility({ visibilityProperty: true })
const nameOf = (it) => (it.getAttribute('aria-label') ?? it.labels?.[0]?.textContent ?? it.textContent).trim()
const controlsOf = (it) => [...it.querySelectorAll(CONTROLS)].filter(canHave)
const isBehind = (it, other) => (other.compareDocumentPosition(it) & Node.DOCUMENT_POSITION_FOLLOWING) !== 0

// What had the focus: in which list, under which name, in which dialog, and what had it before that dialog was opened.
let last = null

function note({ target }) {
  const dialog = target.closest('dialog')
  last = { target, dialog, before: beforeOf(dialog), list: target.closest('ul, table, p'), name: nameOf(target) }
}

function beforeOf(dialog) {
  if (dialog === null) return null
  for (let it = last; it !== null; it = it.before) if (it.dialog === dialog) return it.before
  return last
}

// a list that was drawn anew has the same control again
function sameAgain({ target, list, name }) {
  if (target.isConnected || !list?.isConnected) return undefined
  return controlsOf(list).find((it) => nameOf(it) === name)
}

// the next one behind it in its group, else the one before
function neighbour(target, around) {
  const own = controlsOf(around)
  return own.find((it) => isBehind(it, target)) ?? own.at(-1)
}

function neighbourOf({ target, dialog, list }) {
  const from = target.isConnected ? target : list
  if (!from?.isConnected) return undefined
  for (let around = from.parentElement; around !== null && around !== document.body; around = around.parentElement) {
    const found = target.isConnected || dialog !== null ? neighbour(from, around) : undefined
    if (found !== undefined) return found
    if (around === dialog || (dialog === null && around.matches(GROUPS))) return undefined
  }
  return undefined
}

// where it goes from there; a dialog that was closed leaves it to what was before it
function heirOf(had) {
  if (had.dialog !== null && !had.dialog.open) {
    if (had.before === null) return undefined
    return canHave(had.before.target) ? had.before.target : heirOf(had.before)
  }
  return sameAgain(had) ?? neighbourOf(had)
}

// the dialog that is open, else the page, or in its place the room of a receiver
function home() {
  const dialog = [...document.querySelectorAll('dialog[open]')].at(-1)
  return dialog === undefined ? [...document.querySelectorAll('#sheet, #received input')].find(canHave) : controlsOf(dialog)[0]
}

function keep() {
  const { activeElement } = document
  if (last === null || canHave(last.target) || (activeElement !== last.target && activeElement !== document.body)) return
  ;(heirOf(last) ?? home())?.focus()
}

let isDue = false

function keepSoon() {
  if (isDue) return
  isDue = true
  requestAnimationFrame(() => {
    isDue = false
    keep()
  })
}

export function keepFocus() {
  note({ target: document.activeElement ?? document.body })
  document.addEventListener('focusin', note)
  document.addEventListener('focusout', keepSoon)
  const what = { subtree: true, childList: true, attributeFilter: ['disabled', 'hidden', 'open', 'class'] }
  new MutationObserver(keepSoon).observe(document.body, what)
}
