// What documents are called: each by the value of a field that was chosen, with the values of two others beside it. The values
// of a document are asked for where they are wanted, once.

// how a field may be called that gives a document its name, its date or its author, in capitals and without blanks and signs
const LIKELY = {
  name: ['TITLE', 'SUBJECT', 'EMAILSUBJECT', 'FILENAME', 'DOCTITLE', 'FILETITLE', 'NAME', 'DOCNAME'],
  date: ['DOCDATE', 'DATESENT', 'SENTDATE', 'DATE', 'DATESENTUTC', 'DATECREATED', 'CREATEDATE', 'DATELASTMOD', 'LASTMODIFIED'],
  author: ['AUTHOR', 'FROM', 'EMAILFROM', 'SENDER', 'CREATEDBY'],
}
export const PARTS = Object.keys(LIKELY)

const plain = (name) => name.toUpperCase().replace(/[^A-Z0-9]/g, '')
const inTurn = new Intl.Collator('en', { numeric: true, sensitivity: 'base' })

// a date as it is sorted: 2019-03-04 and 20190304 as they are, 3/4/2019 with the month first, as the load files of the United
// States have it; and any other text as it stands
function dateKey(text) {
  const turned = /^(\d{1,2})\/(\d{1,2})\/(\d{4})/.exec(text)
  if (turned !== null) return `${turned[3]}${turned[1].padStart(2, '0')}${turned[2].padStart(2, '0')}`
  return text.replace(/^(\d{4})-(\d{2})-(\d{2})/, '$1$2$3')
}

export class Names extends EventTarget {
  constructor(looks, place) {
    super()
    Object.assign(this, { looks, place })
    this.fields = [] // the names of the matter's fields
    this.chosen = { ...place.kept.fields } // the field of each part, or '' for none
    this.known = new Map() // the values of each document that was told
  }

  // whether documents have a name, a date or an author
  get isNamed() {
    return PARTS.some((part) => this.fieldOf(part) !== '')
  }

  // whether a row wants the values of its document; as long as no field is known it does
  get isWanted() {
    return this.fields.length === 0 || this.isNamed
  }

  // the field of a part: the one that was chosen, else one that is called so
  fieldOf(part) {
    const chosen = this.chosen[part]
    if (chosen !== undefined && (chosen === '' || this.fields.includes(chosen))) return chosen
    return LIKELY[part].map((likely) => this.fields.find((name) => plain(name) === likely)).find(Boolean) ?? ''
  }

  choose(chosen) {
    this.chosen = chosen
    this.place.keep({ fields: chosen })
    this.dispatchEvent(new CustomEvent('chosen'))
  }

  isKnown(number) {
    return this.known.has(number)
  }

  // the values of a document where they were told, or null
  valuesOf(number) {
    return this.known.get(number) ?? null
  }

  async read(number, isBehind = false) {
    const values = await this.looks.values(number, isBehind)
    this.known.set(number, values)
    if (this.fields.length === 0) {
      this.fields = values.map(({ name }) => name)
      this.dispatchEvent(new CustomEvent('chosen'))
    }
    this.dispatchEvent(new CustomEvent('told', { detail: number }))
  }

  // the value of a document's part on one line, or the empty text
  of(number, part) {
    const field = this.fieldOf(part)
    const value = this.known.get(number)?.find(({ name }) => name === field)?.value ?? ''
    return value.replace(/\s*\n\s*/g, '; ').trim()
  }

  // documents by a part, those without one last
  sort(all, part, isBackward) {
    const keyOf = part === 'date' ? dateKey : (text) => text
    const keys = new Map(all.map((number) => [number, keyOf(this.of(number, part))]))
    const isEmpty = (number) => Number(keys.get(number) === '')
    const sign = isBackward ? -1 : 1
    all.sort((a, b) => isEmpty(a) - isEmpty(b) || sign * inTurn.compare(keys.get(a), keys.get(b)) || a - b)
  }
}
