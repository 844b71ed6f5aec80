// What belongs together, by what `keyOf` gives of each: a map of lists, in the order in which they come.
export function grouped(list, keyOf) {
  const groups = new Map()
  for (const it of list) {
    const key = keyOf(it)
    if (groups.has(key)) groups.get(key).push(it)
    else groups.set(key, [it])
  }
  return groups
}
