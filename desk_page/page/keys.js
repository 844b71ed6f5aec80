// The keyboard: what each key does, and the list of keys that `?` shows. A text field has its letters for itself.

// key, what it does, how the list shows it where that is another word
const ROWS = [
  ['Documents and pages'],
  ['j', 'next document'],
  ['k', 'document before'],
  ['u', 'next document that isn’t settled'],
  ['o', 'open a document by its number'],
  ['f', 'which documents the list shows'],
  ['i', 'the list: names, dates, authors, order'],
  ['/', 'find words'],
  ['.', 'next hit of the search'],
  [',', 'hit before'],
  ['ShiftArrows', 'move the view over the page', 'Shift arrows'],
  ['ArrowRight', 'next page', '→'],
  ['ArrowLeft', 'page before', '←'],
  [' ', 'read on, to the next page too', 'Space'],
  ['+', 'larger'],
  ['-', 'smaller'],
  ['0', 'page width'],
  ['v', 'turn the view by a quarter'],
  ['t', 'show or hide the words'],
  ['l', 'look again at the document'],
  ['The call'],
  ['y', 'responsive'],
  ['n', 'not responsive'],
  ['p', 'produce'],
  ['r', 'redact'],
  ['a', 'withhold for AC'],
  ['w', 'withhold for WP'],
  ['z', 'take back my last call'],
  ['m', 'mark the document'],
  ['x', 'one call for a family, or for all that are marked'],
  ['d', 'to the designation'],
  ['g', 'to the log entry'],
  ['h', 'to the held fields'],
  ['CtrlEnter', 'put the log entry, in its description', 'Ctrl Enter'],
  ['Boxes'],
  ['b', 'a new box'],
  ['e', 'choose the next box of the page'],
  ['1', 'basis AC'],
  ['2', 'basis WP'],
  ['3', 'basis PI'],
  ['4', 'basis TS'],
  ['Arrows', 'move the chosen box; with Shift size it, with Ctrl by one pixel'],
  ['Enter', 'put the chosen box'],
  ['Delete', 'drop the chosen box'],
  [';', 'choose words: the arrows go to others, with Shift they choose more, Enter makes boxes of them'],
  ['q', 'redact by term: boxes for what is found; as long as it is open'],
  ['.,', 'go to the next proposed box and the one before, and Space takes or leaves it', '. ,'],
  ['Escape', 'leave the box or a text field; stop what takes long'],
  ['Second review'],
  ['c', 'confirm, after one more look'],
  ['s', 'send back'],
  ['?', 'this list'],
]

const ARROWS = { ArrowLeft: [-1, 0], ArrowRight: [1, 0], ArrowUp: [0, -1], ArrowDown: [0, 1] }
// where the list of documents, or of hits, has the focus
const IN_LIST = { documents: { ArrowUp: 'k', ArrowDown: 'j' }, hits: { ArrowUp: 'hitBefore', ArrowDown: 'hitAfter' } }
const STRIDE = 10 // pixels of the page

const isText = (target) => target.matches('textarea, select, input:not([type=radio], [type=checkbox])')

// a button that has the focus keeps Enter and Space, a choice its arrows, and so does a list that scrolls by them
const isKept = ({ key, target }) => ((key === 'Enter' || key === ' ') && target.matches('button, input, summary'))
  || (key in ARROWS && target.matches('[type=radio], #proposed'))

// what the press is among the keys of `does`
function nameOf({ key, shiftKey, target }) {
  const inList = IN_LIST[target.id]?.[key]
  if (inList !== undefined) return inList
  if (shiftKey && (key === ' ' || key in ARROWS)) return `Shift${key}`
  return key.length === 1 ? key.toLowerCase() : key
}

export class Keys {
  // `does` has for each key what it does; `boxes` has the chosen box, which the arrows move
  constructor(does, boxes, act) {
    this.does = does
    this.boxes = boxes
    document.addEventListener('keydown', act((event) => this.press(event)))
  }

  press(event) {
    const { key, target } = event
    if (document.querySelector('dialog[open]') !== null) return null
    if (isText(target)) {
      if (key === 'Escape') this.does.leaveField()
      return null
    }
    if (event.metaKey || event.altKey || isKept(event)) return null
    if (key in ARROWS && this.moveBox(event)) return null
    if (event.ctrlKey) return null
    const work = this.does[nameOf(event)]
    if (work === undefined) return null
    event.preventDefault()
    return work()
  }

  moveBox(event) {
    const [right, down] = ARROWS[event.key]
    const step = event.ctrlKey ? 1 : STRIDE
    if (!this.boxes.nudge(right * step, down * step, event.shiftKey)) return false
    event.preventDefault()
    return true
  }
}

// the list of keys: a table for each group
export function listKeys(place) {
  place.replaceChildren()
  for (const [key, does, shown] of ROWS) {
    if (does === undefined) place.append(groupOf(key))
    else place.lastElementChild.append(rowOf(shown ?? (key.length === 1 ? key.toUpperCase() : key), does))
  }
}

function groupOf(name) {
  const table = document.createElement('table')
  table.createCaption().textContent = name
  return table
}

function rowOf(key, does) {
  const row = document.createElement('tr')
  const mark = document.createElement('kbd')
  mark.textContent = key
  row.insertCell().append(mark)
  row.insertCell().textContent = does
  return row
}
