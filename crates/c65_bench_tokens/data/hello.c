int main(void){putchar(65);return 300;}
