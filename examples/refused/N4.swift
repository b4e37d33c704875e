func main(system: NodeSystem) async throws {
  print(self)
}
