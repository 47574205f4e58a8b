from upon_proved import render

print(render({"hello": "Hello {{ name }}!"}, "hello", {"name": "John"}))
