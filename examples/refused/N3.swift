func main(system: NodeSystem) async throws {
  if true {
    let a = 1
    print(a)
  }
  print(a)
}
