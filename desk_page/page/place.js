// Where somebody was: in the address, as a link (`#24/3` is document 24, page 3; `#24/3?find=counsel+advice` with what is looked
// for), and by person for the life of the tab.
import { digestOfText } from './digest.js'

const SOON = 200 // milliseconds
const LINK = /^#([1-9]\d{0,8})(?:\/([1-9]\d{0,8}))?(?:\?(.*))?$/

// { number, page, find }, `find` null where the link has no search; or null where it is no link
export function placeIn(link) {
  const found = LINK.exec(link)
  if (found === null) return null
  return { number: Number(found[1]), page: Number(found[2] ?? 1), find: new URLSearchParams(found[3] ?? '').get('find') }
}

export function linkOf(number, page, find) {
  return `#${number}/${page}${find === '' ? '' : `?${new URLSearchParams({ find })}`}`
}

export class Place {
  // A person is known here by a piece of their key's digest, which tells two people of a tab apart, and no key.
  static async of(key) {
    return new Place(`place ${(await digestOfText(`place ${key}`)).slice(0, 8)}`)
  }

  constructor(name) {
    this.name = name
    this.kept = JSON.parse(sessionStorage.getItem(name) ?? '{}')
    this.find = '' // what is looked for
    this.at = null // the document and page that are open
  }

  // where to begin: at the link, else where this person was
  begin() {
    return placeIn(window.location.hash) ?? placeIn(this.kept.link ?? '') ?? { number: 1, page: 1, find: null }
  }

  keep(what) {
    Object.assign(this.kept, what)
    sessionStorage.setItem(this.name, JSON.stringify(this.kept))
  }

  // The open document and page; soon, as a browser takes its time to write an address, and the page comes first.
  keepLinkSoon(doc, page) {
    this.at = { doc, page }
    clearTimeout(this.soon)
    this.soon = setTimeout(() => this.keepLink(doc, page), SOON)
  }

  keepSearch(find) {
    this.find = find
    if (this.at !== null) this.keepLinkSoon(this.at.doc, this.at.page)
  }

  keepLink(doc, page) {
    clearTimeout(this.soon)
    const link = linkOf(doc, page, this.find)
    this.keep({ link })
    window.history.replaceState(null, '', link)
  }
}

// the address without a link, for who comes next
export const forgetLink = () => window.history.replaceState(null, '', window.location.pathname)
