func main(system: NodeSystem) async throws {
  let big = 9_223_372_036_854_775_808
}
