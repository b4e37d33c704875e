func main(system: NodeSystem) async throws {
  print("hello)
}
