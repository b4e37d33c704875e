struct Point {
  var x = 0
  func move(by: Int) {
  }
  func move(by amount: Int) {
  }
}
