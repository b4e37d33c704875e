func main(system: NodeSystem) async throws {
  let a = 5 # 3
}
