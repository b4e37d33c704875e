struct Counter {
  var count = 0
  static func next() -> Int {
    return count + 1
  }
}
