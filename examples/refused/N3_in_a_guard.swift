func twice(x: Int?) -> Int {
  guard let n = x else {
    return n
  }
  return n + n
}
