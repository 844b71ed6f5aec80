// Which pages of so many are looked at before a freeze: a sample that is spread over them.

// So many of the places, evenly: each is the middle of an equal part.
export function spread(places, count) {
  const most = Math.min(count, places.length)
  return Array.from({ length: most }, (_, k) => places[Math.floor(((k + 0.5) * places.length) / most)])
}
