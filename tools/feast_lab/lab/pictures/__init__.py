"""Pictures of planes: figures, heat maps, and the colours and letters of elements."""
