func main(system: NodeSystem) async throws {
  let v0 = 1 + 2
  print(v0)
  print("hi")
}
